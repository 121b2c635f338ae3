SET SCALE 6 ROUNDING HALF_UP;
INPUT "x" ("k" TEXT, "j" INTEGER, "u" INTEGER) KEY ("k", "j");
CREATE TABLE "R" AS
  SELECT "a"."k" AS "k", "a"."j" AS "j", '1' AS "ruleid", "a"."u" AS "u", 'low' AS "errorcode",
    2 AS "errorlevel"
  FROM "x" AS "a"
  WHERE NOT CASE WHEN "a"."j" > 0 THEN "a"."u" > 1 ELSE NOT "a"."j" > 0 END
  UNION ALL
  SELECT "a"."k" AS "k", "a"."j" AS "j", 'last' AS "ruleid", "a"."u" AS "u",
    CASE WHEN FALSE THEN '' ELSE NULL END AS "errorcode",
    CASE WHEN FALSE THEN 0 ELSE NULL END AS "errorlevel"
  FROM "x" AS "a"
  WHERE NOT "a"."u" < 9;
CREATE TABLE "S$1" AS
  SELECT "a"."k" AS "k", "a"."j" AS "j", "a"."u" AS "u"
  FROM "x" AS "a";
CREATE TABLE "S$2" AS
  SELECT "a"."k" AS "k", "a"."j" AS "j", "a"."u" > 1 AS "bool_var"
  FROM "S$1" AS "a";
CREATE TABLE "S$3" AS
  SELECT "a"."k" AS "k", "a"."j" AS "j", "a"."u" AS "u"
  FROM "x" AS "a";
CREATE TABLE "S" AS
  SELECT "a"."k" AS "k", "a"."j" AS "j", "a"."bool_var" AS "bool_var",
    CASE WHEN TRUE THEN "b"."u" ELSE 0.0 END AS "imbalance",
    CASE WHEN NOT "a"."bool_var" THEN 'low' ELSE NULL END AS "errorcode",
    CASE WHEN FALSE THEN 0 ELSE NULL END AS "errorlevel"
  FROM "S$2" AS "a"
  LEFT JOIN "S$3" AS "b" ON "b"."k" = "a"."k" AND "b"."j" = "a"."j";
EXPORT "R" ORDER BY "k", "j", "ruleid";
EXPORT "S" ORDER BY "k", "j";
