-- Tables for a report: a row for each answer after each snapshot, and one for each refused line.
CREATE TABLE answer (line INTEGER, snapshot INTEGER, query TEXT, first TEXT, second TEXT, third TEXT, fourth TEXT);
CREATE TABLE refusal (line INTEGER, cause TEXT, name TEXT, clash INTEGER);
