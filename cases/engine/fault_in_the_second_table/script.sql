SET SCALE 2 ROUNDING HALF_UP;
INPUT "T" ("id" INTEGER, "k" INTEGER, "v" INTEGER) KEY ("id");
CREATE TABLE "A" AS
  SELECT "t"."id" AS "x"
  FROM "T" AS "t";
EXPORT "A";
CREATE TABLE "B" AS
  SELECT "t"."v" * "t"."v" AS "x"
  FROM "T" AS "t";
EXPORT "B";
