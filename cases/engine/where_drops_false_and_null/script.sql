SET SCALE 2 ROUNDING HALF_UP;
INPUT "T" ("id" INTEGER, "k" INTEGER, "v" INTEGER) KEY ("id");
CREATE TABLE "U" AS
  SELECT "t"."id" AS "id"
  FROM "T" AS "t"
  WHERE "t"."v" > 5;
EXPORT "U";
