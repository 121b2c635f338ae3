SET SCALE 2 ROUNDING HALF_UP;
INPUT "T" ("id" INTEGER, "p" PERIOD, "q" PERIOD) KEY ("id");
CREATE TABLE "U" AS
  SELECT "s"."p" AS "p", "s"."q" AS "q"
  FROM SERIES "T" ON "q" BY ("p") SINGLE AS "s";
EXPORT "U";
