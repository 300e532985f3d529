# Of a JSON report, what changed with each snapshot: `+` an answer that came, `-` one that went. Refusals are shown too.
foreach inputs as $event (
  {now: []};
  if $event.answers
  then {before: .now, now: [$event.answers[] | .query as $query | .tuples[] | [$query] + . | join(" ")]}
  else .before = .now end;
  if $event.answers then "line \($event.line)", (.now - .before | .[] | "+ " + .), (.before - .now | .[] | "- " + .)
  elif $event.end or $event.declared then empty
  else "line \($event.line): " + ([$event.refused, $event.name // $event.clash // empty | tostring] | join(" ")) end
)
