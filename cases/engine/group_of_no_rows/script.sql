SET SCALE 2 ROUNDING HALF_UP;
INPUT "T" ("id" INTEGER, "a" TEXT, "b" INTEGER, "c" BOOLEAN, "v" INTEGER) KEY ("id");
CREATE TABLE "U" AS
  SELECT COUNT(*) AS "n", COUNT("t"."v") AS "m", SUM("t"."v") AS "s", AVG("t"."v") AS "a", MIN("t"."a") AS "i", MAX("t"."c") AS "j", MEDIAN("t"."v") AS "d"
  FROM "T" AS "t";
EXPORT "U";
