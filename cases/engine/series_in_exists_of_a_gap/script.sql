SET SCALE 2 ROUNDING HALF_UP;
INPUT "T" ("id" INTEGER, "g" TEXT, "p" PERIOD, "v" INTEGER) KEY ("id");
CREATE TABLE "D" AS
  SELECT "t"."v" AS "v", "s"."p" AS "p"
  FROM "T" AS "t"
  CROSS JOIN SERIES "T" ON "p" ALL AS "s"
  WHERE "t"."id" = 1;
CREATE TABLE "U" AS
  SELECT "d"."p" AS "p"
  FROM "D" AS "d"
  WHERE EXISTS (SELECT 1 FROM SERIES "T" ON "p" BY ("v") SINGLE AS "s" WHERE "s"."v" = "d"."v" AND "s"."p" = "d"."p");
EXPORT "U";
