SET SCALE 2 ROUNDING HALF_UP;
INPUT "T" ("id" INTEGER, "g" TEXT, "p" PERIOD, "v" INTEGER) KEY ("id");
CREATE TABLE "U" AS
  SELECT "t"."id" AS "id", EXISTS (SELECT 1 FROM SERIES "T" ON "p" BY ("g") ALL AS "s" WHERE "s"."g" = "t"."g" AND "s"."p" = "t"."p") AS "e"
  FROM "T" AS "t";
EXPORT "U";
