SET SCALE 2 ROUNDING HALF_UP;
INPUT "T" ("id" INTEGER, "i" INTEGER, "n" NUMBER, "s" TEXT) KEY ("id");
CREATE TABLE "U" AS
  SELECT 'all' AS "s", SUM("t"."i") AS "x"
  FROM "T" AS "t"
  UNION ALL
  SELECT "t"."s" AS "s", "t"."i" AS "x"
  FROM "T" AS "t"
  UNION ALL
  SELECT "t"."s" AS "s", COUNT(*) AS "x"
  FROM "T" AS "t"
  GROUP BY "t"."s"
  HAVING "t"."s" IS NOT NULL;
EXPORT "U";
