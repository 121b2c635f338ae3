SET SCALE 2 ROUNDING HALF_UP;
INPUT "T" ("id" INTEGER, "i" INTEGER, "n" NUMBER, "s" TEXT) KEY ("id");
CREATE TABLE "U" AS
  SELECT "t"."i" AS "x"
  FROM "T" AS "t"
  UNION ALL
  SELECT "t"."n" AS "x"
  FROM "T" AS "t";
EXPORT "U";
