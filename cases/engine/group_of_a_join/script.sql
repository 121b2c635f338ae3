SET SCALE 2 ROUNDING HALF_UP;
INPUT "T" ("id" INTEGER, "a" TEXT, "b" INTEGER, "c" BOOLEAN, "v" INTEGER) KEY ("id");
CREATE TABLE "U" AS
  SELECT "t"."a" AS "a", COUNT(*) AS "n", COUNT("s"."id") AS "m", SUM("s"."v") AS "s"
  FROM "T" AS "t"
  LEFT JOIN "T" AS "s" ON "t"."a" = "s"."a" AND "s"."id" > "t"."id"
  GROUP BY "t"."a";
EXPORT "U";
