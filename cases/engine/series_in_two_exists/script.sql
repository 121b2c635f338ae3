SET SCALE 2 ROUNDING HALF_UP;
INPUT "T" ("id" INTEGER, "g" TEXT, "p" PERIOD, "q" PERIOD) KEY ("id");
CREATE TABLE "U" AS
  SELECT "t"."id" AS "id"
  FROM "T" AS "t"
  WHERE EXISTS (SELECT 1 FROM SERIES "T" ON "p" BY ("g") SINGLE AS "s" WHERE "s"."g" = "t"."g" AND "s"."p" = "t"."q") AND NOT EXISTS (SELECT 1 FROM SERIES "T" ON "q" SINGLE AS "x" WHERE "x"."q" = "t"."p");
EXPORT "U";
