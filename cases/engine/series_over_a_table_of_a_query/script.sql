SET SCALE 2 ROUNDING HALF_UP;
INPUT "T" ("id" INTEGER, "g" TEXT, "p" PERIOD, "v" INTEGER) KEY ("id");
CREATE TABLE "K" AS
  SELECT "t"."p" AS "p", "t"."g" AS "g"
  FROM "T" AS "t"
  WHERE "t"."v" > 1;
CREATE TABLE "U" AS
  SELECT "s"."g" AS "g", "s"."p" AS "p"
  FROM SERIES "K" ON "p" BY ("g") ALL AS "s";
EXPORT "U";
