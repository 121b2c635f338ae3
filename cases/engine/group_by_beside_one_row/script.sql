SET SCALE 2 ROUNDING HALF_UP;
INPUT "T" ("id" INTEGER, "a" TEXT, "b" INTEGER, "c" BOOLEAN, "v" INTEGER) KEY ("id");
INPUT "S" ("id" INTEGER) KEY ("id");
CREATE TABLE "U" AS
  SELECT "t"."a" AS "a", SUM("t"."v") AS "s", MAX("s"."id") AS "m"
  FROM "T" AS "t"
  CROSS JOIN "S" AS "s"
  GROUP BY "t"."a";
EXPORT "U";
