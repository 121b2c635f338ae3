SET SCALE 2 ROUNDING HALF_UP;
INPUT "T" ("id" INTEGER, "g" TEXT, "p" PERIOD) KEY ("id");
INPUT "K" ("id" INTEGER, "g" TEXT, "p" PERIOD) KEY ("id");
CREATE TABLE "U" AS
  SELECT "t"."g" AS "g", COUNT(*) AS "n"
  FROM "T" AS "t"
  GROUP BY "t"."g"
  HAVING EXISTS (SELECT 1 FROM SERIES "K" ON "p" BY ("g") ALL AS "s" WHERE "s"."g" = "t"."g");
EXPORT "U";
