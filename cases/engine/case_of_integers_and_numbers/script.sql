SET SCALE 2 ROUNDING HALF_UP;
INPUT "T" ("id" INTEGER, "k" INTEGER, "v" INTEGER) KEY ("id");
CREATE TABLE "U" AS
  SELECT "t"."id" AS "id", CASE WHEN "t"."id" = 1 THEN 1 WHEN "t"."id" = 2 THEN 0.5 ELSE "t"."v" END / 3 AS "c"
  FROM "T" AS "t";
EXPORT "U";
