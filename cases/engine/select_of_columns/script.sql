SET SCALE 2 ROUNDING HALF_UP;
INPUT "T" ("id" INTEGER, "k" INTEGER, "v" INTEGER) KEY ("id");
CREATE TABLE "U" AS
  SELECT "t"."v" AS "v", "t"."id" AS "id"
  FROM "T" AS "t";
EXPORT "U";
