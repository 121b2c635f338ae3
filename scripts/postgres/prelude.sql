-- What a text of the dialect needs of PostgreSQL 15 and later: functions, operators and aggregates that round at the scale of
-- the text, in a schema that is looked into before those of the system. The scale and the rounding are settings of the session.
CREATE SCHEMA IF NOT EXISTS vtl;
SET search_path = vtl, pg_catalog, public;

-- A number rounded to some digits by the rounding of the text.
CREATE OR REPLACE FUNCTION vtl.rounded(a numeric, digits integer) RETURNS numeric LANGUAGE plpgsql STABLE STRICT AS $$
DECLARE cut numeric := pg_catalog.trunc(a, digits);
        rest numeric := pg_catalog.abs(a OPERATOR(pg_catalog.-) cut);
        half numeric := pg_catalog.power(10::numeric, (OPERATOR(pg_catalog.-) digits)::numeric) OPERATOR(pg_catalog./) 2;
BEGIN
  CASE pg_catalog.current_setting('vtl.rounding')
    WHEN 'half_up' THEN RETURN pg_catalog.round(a, digits);
    WHEN 'down' THEN RETURN cut;
    ELSE
      IF rest OPERATOR(pg_catalog.=) half AND
         pg_catalog.mod(pg_catalog.abs(cut) OPERATOR(pg_catalog.*) pg_catalog.power(10::numeric, digits::numeric), 2) OPERATOR(pg_catalog.=) 0 THEN
        RETURN cut;
      END IF;
      RETURN pg_catalog.round(a, digits);
  END CASE;
END $$;

-- A number at the scale; one that is out of range is an error.
CREATE OR REPLACE FUNCTION vtl.fit(a numeric) RETURNS numeric LANGUAGE plpgsql STABLE STRICT AS $$
DECLARE scale integer := pg_catalog.current_setting('vtl.scale')::integer;
        b numeric := vtl.rounded(a, scale);
BEGIN
  IF pg_catalog.abs(b) OPERATOR(pg_catalog.>=) pg_catalog.power(10::numeric, (18 OPERATOR(pg_catalog.-) scale)::numeric) THEN
    RAISE EXCEPTION USING ERRCODE = '22003', MESSAGE = 'out of range';
  END IF;
  RETURN b;
END $$;

CREATE OR REPLACE FUNCTION vtl.plus(a numeric, b numeric) RETURNS numeric LANGUAGE sql STABLE STRICT AS 'SELECT vtl.fit(a OPERATOR(pg_catalog.+) b)';
CREATE OR REPLACE FUNCTION vtl.minus(a numeric, b numeric) RETURNS numeric LANGUAGE sql STABLE STRICT AS 'SELECT vtl.fit(a OPERATOR(pg_catalog.-) b)';
CREATE OR REPLACE FUNCTION vtl.times(a numeric, b numeric) RETURNS numeric LANGUAGE sql STABLE STRICT AS 'SELECT vtl.fit(a OPERATOR(pg_catalog.*) b)';
-- Forty digits more than the quotient of two numbers of 18 digits needs for its rounding to be exact.
CREATE OR REPLACE FUNCTION vtl.over(a numeric, b numeric) RETURNS numeric LANGUAGE sql STABLE STRICT AS 'SELECT vtl.fit(pg_catalog.round(a, 60) OPERATOR(pg_catalog./) b)';

DO $$
DECLARE sign text; name text; kind text;
BEGIN
  FOR sign, name IN VALUES ('+', 'plus'), ('-', 'minus'), ('*', 'times'), ('/', 'over') LOOP
    FOR kind IN VALUES ('numeric'), ('bigint'), ('integer') LOOP
      IF kind <> 'numeric' THEN
        EXECUTE format('CREATE OR REPLACE FUNCTION vtl.%I(a %s, b %s) RETURNS numeric LANGUAGE sql STABLE STRICT AS ''SELECT vtl.%I(a::numeric, b::numeric)''', name, kind, kind, name);
      END IF;
      EXECUTE format('DROP OPERATOR IF EXISTS vtl.%s (%s, %s)', sign, kind, kind);
      EXECUTE format('CREATE OPERATOR vtl.%s (LEFTARG = %s, RIGHTARG = %s, FUNCTION = vtl.%I)', sign, kind, kind, name);
    END LOOP;
  END LOOP;
END $$;

CREATE OR REPLACE FUNCTION vtl.mod(a numeric, b numeric) RETURNS numeric LANGUAGE sql STABLE STRICT AS
  'SELECT CASE WHEN b OPERATOR(pg_catalog.=) 0 THEN a ELSE a OPERATOR(pg_catalog.-) b OPERATOR(pg_catalog.*) pg_catalog.floor(a OPERATOR(pg_catalog./) b) END';
CREATE OR REPLACE FUNCTION vtl.round(a numeric, digits integer) RETURNS numeric LANGUAGE sql STABLE STRICT AS 'SELECT vtl.fit(vtl.rounded(a, digits))';
CREATE OR REPLACE FUNCTION vtl.floor(a numeric) RETURNS numeric LANGUAGE sql STABLE STRICT AS 'SELECT vtl.fit(pg_catalog.floor(a))';
CREATE OR REPLACE FUNCTION vtl.ceil(a numeric) RETURNS numeric LANGUAGE sql STABLE STRICT AS 'SELECT vtl.fit(pg_catalog.ceil(a))';
CREATE OR REPLACE FUNCTION vtl.instr(a text, b text) RETURNS numeric LANGUAGE sql IMMUTABLE STRICT AS 'SELECT pg_catalog.strpos(a, b)::numeric';
CREATE OR REPLACE FUNCTION vtl.length(a text) RETURNS numeric LANGUAGE sql IMMUTABLE STRICT AS 'SELECT pg_catalog.char_length(a)::numeric';
CREATE OR REPLACE FUNCTION vtl."between"(a anycompatible, x anycompatible, y anycompatible) RETURNS boolean LANGUAGE sql IMMUTABLE AS
  'SELECT CASE WHEN a IS NULL OR x IS NULL OR y IS NULL THEN NULL ELSE a >= x AND a <= y END';
CREATE OR REPLACE FUNCTION vtl.ratio(a numeric, total numeric) RETURNS numeric LANGUAGE sql STABLE STRICT AS 'SELECT vtl.over(a, total)';

-- Aggregates: exact, and then rounded once.
CREATE OR REPLACE FUNCTION vtl.add(total numeric, a numeric) RETURNS numeric LANGUAGE sql IMMUTABLE AS
  'SELECT CASE WHEN a IS NULL THEN total WHEN total IS NULL THEN a ELSE total OPERATOR(pg_catalog.+) a END';
CREATE OR REPLACE AGGREGATE vtl.sum(numeric) (SFUNC = vtl.add, STYPE = numeric, FINALFUNC = vtl.fit);
CREATE OR REPLACE FUNCTION vtl.gather(given numeric[], a numeric) RETURNS numeric[] LANGUAGE sql IMMUTABLE AS
  'SELECT CASE WHEN a IS NULL THEN given ELSE pg_catalog.array_append(given, a) END';
CREATE OR REPLACE FUNCTION vtl.mean(given numeric[]) RETURNS numeric LANGUAGE sql STABLE AS
  'SELECT vtl.over(pg_catalog.sum(v), pg_catalog.count(v)::numeric) FROM pg_catalog.unnest(given) AS v HAVING pg_catalog.count(v) > 0';
CREATE OR REPLACE AGGREGATE vtl.avg(numeric) (SFUNC = vtl.gather, STYPE = numeric[], INITCOND = '{}', FINALFUNC = vtl.mean);
CREATE OR REPLACE FUNCTION vtl.middle(given numeric[]) RETURNS numeric LANGUAGE sql STABLE AS $$
  SELECT vtl.over(pg_catalog.sum(v), pg_catalog.count(v)::numeric)
  FROM (SELECT v, pg_catalog.row_number() OVER (ORDER BY v) AS place, pg_catalog.count(*) OVER () AS many FROM pg_catalog.unnest(given) AS v) AS placed
  WHERE place IN (pg_catalog.div((many OPERATOR(pg_catalog.+) 1)::numeric, 2), pg_catalog.div((many OPERATOR(pg_catalog.+) 2)::numeric, 2))
  HAVING pg_catalog.count(v) > 0 $$;
CREATE OR REPLACE AGGREGATE vtl.median(numeric) (SFUNC = vtl.gather, STYPE = numeric[], INITCOND = '{}', FINALFUNC = vtl.middle);
CREATE OR REPLACE AGGREGATE vtl.min(boolean) (SFUNC = pg_catalog.booland_statefunc, STYPE = boolean);
CREATE OR REPLACE AGGREGATE vtl.max(boolean) (SFUNC = pg_catalog.boolor_statefunc, STYPE = boolean);

-- A period is kept as a text that sorts: a mark that no other text has, its frequency as a digit, and its text.
CREATE OR REPLACE FUNCTION vtl.period(a text) RETURNS text LANGUAGE sql IMMUTABLE STRICT AS $$
  SELECT (E'\x01' || CASE pg_catalog.substr(b, 6, 1) WHEN 'A' THEN '1' WHEN 'S' THEN '2' WHEN 'Q' THEN '3' ELSE '4' END || b) COLLATE "C"
  FROM (SELECT CASE WHEN a ~ '^[0-9]{4}$' THEN a || '-A1' WHEN a ~ '^[0-9]{4}-[0-9]{2}$' THEN pg_catalog.substr(a, 1, 5) || 'M' || pg_catalog.substr(a, 6) ELSE a END AS b) AS spelt $$;

-- The texts of values, as files have them.
CREATE OR REPLACE FUNCTION vtl.text_of(a numeric) RETURNS text LANGUAGE sql IMMUTABLE STRICT AS 'SELECT pg_catalog.trim_scale(a)::text';
CREATE OR REPLACE FUNCTION vtl.text_of(a boolean) RETURNS text LANGUAGE sql IMMUTABLE STRICT AS 'SELECT CASE WHEN a THEN ''true'' ELSE ''false'' END';
CREATE OR REPLACE FUNCTION vtl.text_of(a date) RETURNS text LANGUAGE sql IMMUTABLE STRICT AS 'SELECT pg_catalog.to_char(a, ''YYYY-MM-DD'')';
CREATE OR REPLACE FUNCTION vtl.text_of(a text) RETURNS text LANGUAGE sql IMMUTABLE STRICT AS
  'SELECT CASE WHEN pg_catalog.substr(a, 1, 1) = E''\x01'' THEN pg_catalog.substr(a, 3) ELSE NULLIF(a, '''') END';
CREATE OR REPLACE FUNCTION vtl.text_of(a integer) RETURNS text LANGUAGE sql IMMUTABLE STRICT AS 'SELECT a::text';
CREATE OR REPLACE FUNCTION vtl.text_of(a bigint) RETURNS text LANGUAGE sql IMMUTABLE STRICT AS 'SELECT a::text';
