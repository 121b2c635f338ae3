SET SCALE 2 ROUNDING HALF_UP;
INPUT "T" ("id" INTEGER, "i" INTEGER, "n" NUMBER, "s" TEXT) KEY ("id");
CREATE TABLE "U" AS
  SELECT "t"."s" AS "s", 1 AS "c"
  FROM "T" AS "t"
  UNION ALL
  SELECT "t"."s" AS "s", 1 AS "c"
  FROM "T" AS "t"
  UNION ALL
  SELECT 'a' AS "s", 1 AS "c"
  FROM "T" AS "t"
  WHERE "t"."id" = 3;
EXPORT "U";
