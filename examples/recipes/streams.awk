# Lines `NAME snap ..` of many streams: a tom for each name, which gets its lines in their order, and its report with
# the name before each line. -v files='ONTOLOGY QUERIES' says over what.
$1 !~ /^[A-Za-z0-9_.-]+$/ { print "streams.awk: no name: " $1 > "/dev/stderr"; next }
{ name = $1; sub(/^[^ ]+ /, ""); print | ("tom watch " files " | sed 's/^/" name " /'"); fflush() }
