SET SCALE 2 ROUNDING HALF_UP;
INPUT "T" ("id" INTEGER, "a" TEXT, "b" INTEGER, "c" BOOLEAN, "v" INTEGER) KEY ("id");
CREATE TABLE "U" AS
  SELECT "t"."a" AS "a", SUM("t"."v") AS "s"
  FROM "T" AS "t"
  GROUP BY "t"."a"
  HAVING SUM("t"."v") > 100;
EXPORT "U";
