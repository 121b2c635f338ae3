SET SCALE 6 ROUNDING HALF_UP;
INPUT "x" ("k" TEXT, "n" INTEGER, "v" INTEGER, "w" TEXT) KEY ("k", "n");
INPUT "y" ("n" INTEGER, "m" TEXT, "u" INTEGER) KEY ("n", "m");
CREATE TABLE "R" AS
  SELECT "a"."k" AS "k", "a"."n" AS "n", TRUE AS "bool_var"
  FROM "x" AS "a"
  WHERE EXISTS (SELECT 1 FROM "y" AS "b" WHERE "b"."n" = "a"."n");
EXPORT "R" ORDER BY "k", "n";
