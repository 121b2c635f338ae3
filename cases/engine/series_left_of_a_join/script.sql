SET SCALE 2 ROUNDING HALF_UP;
INPUT "T" ("id" INTEGER, "g" TEXT, "p" PERIOD, "v" INTEGER) KEY ("id");
CREATE TABLE "U" AS
  SELECT "s"."g" AS "g", "s"."p" AS "p", "t"."v" AS "v"
  FROM SERIES "T" ON "p" BY ("g") SINGLE AS "s"
  LEFT JOIN "T" AS "t" ON "s"."g" = "t"."g" AND "s"."p" = "t"."p";
EXPORT "U" ORDER BY "g", "p";
