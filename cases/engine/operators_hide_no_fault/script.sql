SET SCALE 2 ROUNDING HALF_UP;
INPUT "T" ("id" INTEGER, "k" INTEGER, "v" INTEGER) KEY ("id");
CREATE TABLE "U" AS
  SELECT "t"."id" AS "id"
  FROM "T" AS "t"
  WHERE FALSE AND 1 / ("t"."id" - 3) = 1;
EXPORT "U";
