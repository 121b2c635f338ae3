SET SCALE 2 ROUNDING HALF_UP;
INPUT "T" ("id" INTEGER, "k" INTEGER, "v" INTEGER) KEY ("id");
INPUT "S" ("id" INTEGER, "k" INTEGER, "w" TEXT) KEY ("id");
CREATE TABLE "U" AS
  SELECT "t"."id" AS "a"
  FROM "T" AS "t"
  WHERE EXISTS (SELECT 1 FROM "S" AS "x" WHERE "x"."k" = "t"."k")
  AND NOT EXISTS (SELECT 1 FROM "S" AS "y" WHERE "y"."id" = "t"."v");
EXPORT "U";
