SET SCALE 2 ROUNDING HALF_UP;
INPUT "T" ("id" INTEGER, "g" TEXT, "p" PERIOD) KEY ("id");
INPUT "K" ("id" INTEGER, "g" TEXT, "p" PERIOD) KEY ("id");
CREATE TABLE "U" AS
  SELECT "t"."id" AS "id", "k"."p" AS "p"
  FROM "T" AS "t"
  INNER JOIN "K" AS "k" ON "k"."g" = "t"."g" AND EXISTS (SELECT 1 FROM SERIES "T" ON "p" BY ("g") SINGLE AS "s" WHERE "s"."g" = "k"."g" AND "s"."p" = "k"."p");
EXPORT "U";
