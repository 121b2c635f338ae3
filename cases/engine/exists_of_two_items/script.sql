SET SCALE 2 ROUNDING HALF_UP;
INPUT "T" ("id" INTEGER, "k" INTEGER, "v" INTEGER) KEY ("id");
INPUT "S" ("id" INTEGER, "k" INTEGER, "w" TEXT) KEY ("id");
CREATE TABLE "U" AS
  SELECT "t"."id" AS "a", EXISTS (SELECT 1 FROM "S" AS "x" WHERE "x"."k" = "t"."k") AS "b", EXISTS (SELECT 1 FROM "S" AS "x" WHERE "x"."id" = "t"."v") AS "c"
  FROM "T" AS "t";
EXPORT "U";
