SET SCALE 2 ROUNDING HALF_UP;
INPUT "T" ("id" INTEGER, "k" INTEGER, "v" INTEGER) KEY ("id");
INPUT "S" ("id" INTEGER, "k" INTEGER, "w" TEXT) KEY ("id");
CREATE TABLE "U" AS
  SELECT "t"."id" AS "a", "s"."id" AS "b"
  FROM "T" AS "t"
  INNER JOIN "S" AS "s" ON "t"."k" = "s"."k"
  WHERE "t"."id" > 2 AND 10 / ("s"."id" - 1) > 0;
EXPORT "U";
