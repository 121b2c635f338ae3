SET SCALE 2 ROUNDING HALF_UP;
INPUT "T" ("id" INTEGER, "a" TEXT, "b" INTEGER, "c" BOOLEAN, "v" INTEGER) KEY ("id");
CREATE TABLE "U" AS
  SELECT "t"."a" AS "a", SUM("t"."v") AS "s", COUNT(*) AS "n"
  FROM "T" AS "t"
  WHERE "t"."id" > 0
  GROUP BY "t"."a";
EXPORT "U";
