# times.awk STREAM REPORT: puts before each line of a text report the time that the comment before its snapshot says.
NR == FNR { if (sub(/^# */, "")) time = $0; at[FNR] = time; next }
$1 == "line" { time = at[$2]; sub(/^line [0-9]+ /, "") }
$1 == "end" { time = "at the end" }
{ print time ": " $0 }
