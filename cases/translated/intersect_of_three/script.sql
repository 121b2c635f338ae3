SET SCALE 6 ROUNDING HALF_UP;
INPUT "y" ("k" TEXT, "n" INTEGER, "v" INTEGER) KEY ("k", "n");
INPUT "x" ("k" TEXT, "n" INTEGER, "v" INTEGER) KEY ("k", "n");
INPUT "z" ("n" INTEGER, "k" TEXT, "v" INTEGER) KEY ("n", "k");
CREATE TABLE "R$1" AS
  SELECT "a"."k" AS "k", "a"."n" AS "n", "a"."v" AS "v"
  FROM "y" AS "a"
  WHERE EXISTS (SELECT 1 FROM "x" AS "b" WHERE "b"."k" = "a"."k" AND "b"."n" = "a"."n");
CREATE TABLE "R" AS
  SELECT "a"."k" AS "k", "a"."n" AS "n", "a"."v" AS "v"
  FROM "R$1" AS "a"
  WHERE EXISTS (SELECT 1 FROM "z" AS "b" WHERE "b"."k" = "a"."k" AND "b"."n" = "a"."n");
EXPORT "R" ORDER BY "k", "n";
