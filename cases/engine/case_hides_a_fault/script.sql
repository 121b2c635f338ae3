SET SCALE 2 ROUNDING HALF_UP;
INPUT "T" ("id" INTEGER, "k" INTEGER, "v" INTEGER) KEY ("id");
CREATE TABLE "U" AS
  SELECT "t"."id" AS "id", CASE WHEN "t"."v" = 5 THEN 0 ELSE 10 / ("t"."v" - 5) END AS "c"
  FROM "T" AS "t";
EXPORT "U";
