SET SCALE 2 ROUNDING HALF_EVEN;
INPUT "T" ("a" TEXT CODES ('x', 'it''s'), "b" NUMBER, "Me ""x""" DATE) KEY ("a", "b");
INPUT "V" ("a" TEXT) KEY ();
CREATE TABLE "U" AS
  SELECT "t"."a" AS "a", -"t"."b" * 1.5 + 2 AS "b", CASE WHEN NOT "t"."b" IS NULL AND "t"."b" NOT IN (1, -2.5) THEN 'é' ELSE NULL END AS "c"
  FROM "T" AS "t" LEFT JOIN "V" AS "v" ON "t"."a" = "v"."a" OR FALSE CROSS JOIN "V" AS "w"
  WHERE EXISTS (SELECT 1 FROM "V" AS "x" WHERE "x"."a" = "t"."a" AND "x"."a" = "w"."a")
  UNION ALL
  SELECT "t"."a" AS "a", COUNT(*) AS "b", MAX("t"."b") || SUBSTR('ab', 1) AS "c"
  FROM "T" AS "t" GROUP BY "t"."a" HAVING SUM("t"."b") >= 0.5;
CREATE TABLE "W" AS
  SELECT SUM("t"."b") OVER (PARTITION BY "t"."a" ORDER BY "t"."b" DESC ROWS BETWEEN 1 PRECEDING AND CURRENT ROW) AS "s",
    LAG("t"."b", 1, DATE '2020-01-01') OVER (ORDER BY "t"."a") AS "l", RANK() OVER (ORDER BY "t"."b") AS "r"
  FROM "T" AS "t";
EXPORT "U" ORDER BY "a", "b";
EXPORT "W";
