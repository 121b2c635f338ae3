SET SCALE 2 ROUNDING HALF_UP;
INPUT "T" ("id" INTEGER, "i" INTEGER, "n" NUMBER, "s" TEXT) KEY ("id");
CREATE TABLE "U" AS
  SELECT "t"."n" AS "x"
  FROM "T" AS "t"
  UNION ALL
  SELECT 7 AS "x"
  FROM "T" AS "t"
  WHERE "t"."id" = 1;
EXPORT "U";
