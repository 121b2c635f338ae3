SET SCALE 2 ROUNDING HALF_UP;
INPUT "T" ("id" INTEGER, "g" TEXT, "p" PERIOD, "v" INTEGER) KEY ("id");
CREATE TABLE "U" AS
  SELECT COUNT(*) AS "n", MIN("s"."p") AS "first", MAX("s"."p") AS "last"
  FROM SERIES "T" ON "p" BY ("g") SINGLE AS "s";
EXPORT "U";
