SET SCALE 2 ROUNDING HALF_UP;
INPUT "T" ("id" INTEGER, "k" INTEGER, "v" INTEGER) KEY ("id");
CREATE TABLE "R.1$2$3" AS
  SELECT "t"."v" * "t"."v" AS "x"
  FROM "T" AS "t";
