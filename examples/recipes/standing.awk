# standing.awk FACTS STREAM: says the facts of the first file, one a line, again in each snapshot of the second.
NR == FNR { if (!/^[ \t]*(#|$)/) facts = facts " " $0; next }
$1 == "snap" { sub(/snap/, "snap" facts) }
{ print }
