SET SCALE 2 ROUNDING HALF_UP;
INPUT "T" ("id" INTEGER, "k" INTEGER, "v" INTEGER) KEY ("id");
CREATE TABLE "U" AS
  SELECT "t"."id" AS "id", CASE WHEN "t"."v" > 8 THEN 'a' WHEN "t"."v" > 6 THEN 'b' WHEN "t"."v" IS NULL THEN 'c' ELSE 'd' END AS "s"
  FROM "T" AS "t";
EXPORT "U";
