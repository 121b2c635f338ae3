SET SCALE 2 ROUNDING HALF_UP;
INPUT "T" ("id" INTEGER, "g" TEXT, "p" PERIOD, "v" INTEGER) KEY ("id");
CREATE TABLE "U" AS
  SELECT "s"."g" AS "g", "s"."p" AS "p"
  FROM SERIES "T" ON "p" BY ("g") SINGLE AS "s";
EXPORT "U";
