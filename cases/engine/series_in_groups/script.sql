SET SCALE 2 ROUNDING HALF_UP;
INPUT "T" ("id" INTEGER, "g" TEXT, "p" PERIOD, "v" INTEGER) KEY ("id");
CREATE TABLE "U" AS
  SELECT "s"."g" AS "g", COUNT(*) AS "n"
  FROM SERIES "T" ON "p" BY ("g") ALL AS "s"
  GROUP BY "s"."g";
EXPORT "U";
