-- Reports over a desk's file, for sqlite3 while no program has it open. docs/FORMATS.md, "The tables of a file", says what each column is.
--
--     sqlite3 -header -column plant.db ".parameter set :today \"'2027-03-01'\"" ".read reports.sql"
--
-- :today is the day from which orders are due, within both kinds of quotes, of which the shell of sqlite3 takes one away; without it no order is listed.

-- Stock by material and place: what is free, and what is on hold or recalled.
SELECT lot.def AS material, definition.unit AS unit, sublot.place AS place,
       sum(CASE WHEN barred THEN 0 ELSE stock END) AS free,
       sum(CASE WHEN barred THEN stock ELSE 0 END) AS barred
FROM (SELECT sublot.*, EXISTS (SELECT 1 FROM hold WHERE hold.lot = sublot.lot)
                       OR EXISTS (SELECT 1 FROM mark WHERE mark.kind = 1 AND mark.id = sublot.lot) AS barred
      FROM sublot WHERE stock > 0) AS sublot
JOIN lot ON lot.id = sublot.lot
JOIN definition ON definition.id = lot.def
GROUP BY material, place
ORDER BY material, place;

-- Yield of batches: of each output what its control recipe asks for, what was produced and what was scrapped of that.
SELECT asked.batch AS batch, batch.state AS state, asked.def AS material, definition.unit AS unit, asked.qty AS asked,
       coalesce(sum(produced.amount), 0) AS produced,
       coalesce(sum((SELECT sum(amount) FROM movement WHERE kind = 4 AND movement.lot = produced.lot)), 0) AS scrapped
FROM control_line AS asked
JOIN batch ON batch.id = asked.batch
JOIN definition ON definition.id = asked.def
LEFT JOIN (SELECT movement.batch, movement.lot, movement.amount, lot.def
           FROM movement JOIN lot ON lot.id = movement.lot WHERE movement.kind = 3) AS produced
  ON produced.batch = asked.batch AND produced.def = asked.def
WHERE asked.kind = 2
GROUP BY asked.batch, asked.no
ORDER BY asked.batch, asked.no;

-- Orders that are due within the next seven days, or late, and what became of them.
SELECT job.due AS due, job.priority AS priority, job.id AS "order", job.recipe AS recipe, job.version AS version, job.size AS size,
       job.state AS state, batch.id AS batch
FROM job LEFT JOIN batch ON batch.job = job.id
WHERE job.state IN ('open', 'released') AND job.due < date(:today, '+7 days')
ORDER BY job.due, job.priority DESC, job.id;

-- Who booked what: movements by their operators, with the moments of the first and the last in UTC.
SELECT by_who AS operator,
       CASE kind WHEN 1 THEN 'received' WHEN 2 THEN 'consumed' WHEN 3 THEN 'produced' WHEN 4 THEN 'scrapped'
                 WHEN 5 THEN 'divided' WHEN 6 THEN 'split' ELSE 'merged' END AS what,
       count(*) AS bookings, datetime(min(at), 'unixepoch') AS first, datetime(max(at), 'unixepoch') AS last
FROM movement
GROUP BY by_who, kind
ORDER BY by_who, kind;
