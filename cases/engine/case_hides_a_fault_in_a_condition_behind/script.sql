SET SCALE 2 ROUNDING HALF_UP;
INPUT "T" ("id" INTEGER, "k" INTEGER, "v" INTEGER) KEY ("id");
CREATE TABLE "U" AS
  SELECT "t"."id" AS "id", CASE WHEN "t"."v" = 5 THEN 'a' WHEN 10 / ("t"."v" - 5) = 5 THEN 'b' ELSE 'c' END AS "s"
  FROM "T" AS "t";
EXPORT "U";
