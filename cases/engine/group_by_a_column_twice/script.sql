SET SCALE 2 ROUNDING HALF_UP;
INPUT "T" ("id" INTEGER, "a" TEXT, "b" INTEGER, "c" BOOLEAN, "v" INTEGER) KEY ("id");
CREATE TABLE "U" AS
  SELECT "t"."a" AS "a", COUNT(*) AS "n"
  FROM "T" AS "t"
  GROUP BY "t"."a", "t"."b", "t"."a";
EXPORT "U";
