SET SCALE 2 ROUNDING HALF_UP;
INPUT "X" ("id" INTEGER, "x" TEXT) KEY ("id");
CREATE TABLE "U" AS
  SELECT "t"."x" AS "x", COUNT(*) AS "n"
  FROM "X" AS "t"
  GROUP BY "t"."x";
EXPORT "U";
