-- When each answer was there first, and after how many snapshots it was there.
SELECT query, first, second, min(snapshot) AS since, count(*) AS times FROM answer
GROUP BY query, first, second ORDER BY since, query, first, second;
-- What was answered after the last snapshot.
SELECT query, first, second FROM answer WHERE snapshot = (SELECT max(snapshot) FROM answer) ORDER BY query, first, second;
-- Which causes of refusal came how often, and where first.
SELECT cause, name, clash, count(*) AS times, min(line) AS line FROM refusal GROUP BY cause, name, clash ORDER BY line;
