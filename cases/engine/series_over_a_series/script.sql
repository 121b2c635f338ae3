SET SCALE 2 ROUNDING HALF_UP;
INPUT "T" ("id" INTEGER, "g" TEXT, "p" PERIOD) KEY ("id");
CREATE TABLE "K" AS
  SELECT "s"."g" AS "g", "s"."p" AS "p"
  FROM SERIES "T" ON "p" BY ("g") SINGLE AS "s";
CREATE TABLE "U" AS
  SELECT "s"."g" AS "g", "s"."p" AS "p"
  FROM SERIES "K" ON "p" BY ("g") ALL AS "s";
CREATE TABLE "V" AS
  SELECT "s"."g" AS "g", "s"."p" AS "p"
  FROM SERIES "K" ON "p" BY ("g") SINGLE AS "s";
EXPORT "U";
EXPORT "V";
