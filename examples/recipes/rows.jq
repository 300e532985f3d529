# Rows of the tables of tables.sql from a JSON report. Names have no quotes, so they need no escapes.
def text: if . == null then "NULL" else "'\(.)'" end;
if .answers then
  .line as $line | .accepted as $snapshot | .answers[] | .query as $query | .tuples[]
  | "INSERT INTO answer VALUES (\([$line, $snapshot] + [$query, .[0], .[1], .[2], .[3] | text] | map(tostring) | join(", ")));"
elif .refused and (.end | not) then
  "INSERT INTO refusal VALUES (\(.line), \(.refused | text), \(.name | text), \(.clash // "NULL"));"
else empty end
