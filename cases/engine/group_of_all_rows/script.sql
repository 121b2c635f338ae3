SET SCALE 2 ROUNDING HALF_UP;
INPUT "T" ("id" INTEGER, "a" TEXT, "b" INTEGER, "c" BOOLEAN, "v" INTEGER) KEY ("id");
CREATE TABLE "U" AS
  SELECT COUNT(*) AS "n", COUNT("t"."v") AS "m", SUM("t"."v") AS "s"
  FROM "T" AS "t";
EXPORT "U";
