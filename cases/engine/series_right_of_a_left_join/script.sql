SET SCALE 2 ROUNDING HALF_UP;
INPUT "T" ("id" INTEGER, "g" TEXT, "p" PERIOD, "v" INTEGER) KEY ("id");
CREATE TABLE "U" AS
  SELECT "t"."id" AS "id", "s"."g" AS "g", "s"."p" AS "p"
  FROM "T" AS "t"
  LEFT JOIN SERIES "T" ON "p" BY ("g") SINGLE AS "s" ON "s"."g" = "t"."g" AND "s"."p" = "t"."p";
EXPORT "U";
