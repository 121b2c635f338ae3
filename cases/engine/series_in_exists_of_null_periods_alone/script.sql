SET SCALE 2 ROUNDING HALF_UP;
INPUT "T" ("id" INTEGER, "g" TEXT, "p" PERIOD) KEY ("id");
INPUT "K" ("id" INTEGER, "g" TEXT, "p" PERIOD) KEY ("id");
CREATE TABLE "U" AS
  SELECT "t"."id" AS "id", EXISTS (SELECT 1 FROM SERIES "K" ON "p" BY ("g") ALL AS "s") AS "e"
  FROM "T" AS "t";
EXPORT "U";
