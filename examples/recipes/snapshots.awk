# Rows `time,what,first,second` in the order of their times: a snapshot for each time, its time in a comment before it.
BEGIN { FS = "," }
{ sub(/\r$/, "") }
FNR == 1 { next }
$1 "" != time { printf "%s# %s\nsnap", time == "" ? "" : "\n", $1; time = $1 "" }
{ printf $4 == "" ? " %s(%s)" : " %s(%s,%s)", $2, $3, $4 }
END { if (time != "") print "" }
