SET SCALE 2 ROUNDING HALF_UP;
INPUT "X" ("id" INTEGER, "g" TEXT, "k" INTEGER, "v" INTEGER, "n" NUMBER) KEY ("id");
CREATE TABLE "U" AS
  SELECT "x"."id" AS "id", RANK() OVER (ORDER BY "x"."k") AS "a", RANK() OVER (PARTITION BY "x"."g" ORDER BY "x"."k") AS "b", RANK() OVER (ORDER BY "x"."k" DESC) AS "c", RANK() OVER (PARTITION BY "x"."g" ORDER BY "x"."k" DESC) AS "d", RANK() OVER (ORDER BY "x"."g", "x"."k" DESC) AS "e"
  FROM "X" AS "x";
EXPORT "U";
