SET SCALE 2 ROUNDING HALF_UP;
INPUT "T" ("id" INTEGER, "i" INTEGER, "n" NUMBER, "s" TEXT) KEY ("id");
CREATE TABLE "U" AS
  SELECT NULL AS "x", "t"."s" AS "s"
  FROM "T" AS "t"
  UNION ALL
  SELECT 1 AS "x", NULL AS "s"
  FROM "T" AS "t"
  UNION ALL
  SELECT 2.5 AS "x", NULL AS "s"
  FROM "T" AS "t"
  WHERE "t"."id" = 2;
EXPORT "U";
