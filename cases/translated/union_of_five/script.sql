SET SCALE 6 ROUNDING HALF_UP;
INPUT "x0" ("k" TEXT, "v" INTEGER) KEY ("k");
INPUT "x1" ("k" TEXT, "v" INTEGER) KEY ("k");
INPUT "x2" ("k" TEXT, "v" INTEGER) KEY ("k");
INPUT "x3" ("k" TEXT, "v" INTEGER) KEY ("k");
INPUT "x4" ("k" TEXT, "v" INTEGER) KEY ("k");
CREATE TABLE "R$1" AS
  SELECT "a"."k" AS "k", "a"."v" AS "v"
  FROM "x0" AS "a"
  UNION ALL
  SELECT "a"."k" AS "k", "a"."v" AS "v"
  FROM "x1" AS "a"
  WHERE NOT EXISTS (SELECT 1 FROM "x0" AS "b" WHERE "b"."k" = "a"."k");
CREATE TABLE "R$2" AS
  SELECT "a"."k" AS "k", "a"."v" AS "v"
  FROM "R$1" AS "a"
  UNION ALL
  SELECT "a"."k" AS "k", "a"."v" AS "v"
  FROM "x2" AS "a"
  WHERE NOT EXISTS (SELECT 1 FROM "R$1" AS "b" WHERE "b"."k" = "a"."k");
CREATE TABLE "R$3" AS
  SELECT "a"."k" AS "k", "a"."v" AS "v"
  FROM "R$2" AS "a"
  UNION ALL
  SELECT "a"."k" AS "k", "a"."v" AS "v"
  FROM "x3" AS "a"
  WHERE NOT EXISTS (SELECT 1 FROM "R$2" AS "b" WHERE "b"."k" = "a"."k");
CREATE TABLE "R" AS
  SELECT "a"."k" AS "k", "a"."v" AS "v"
  FROM "R$3" AS "a"
  UNION ALL
  SELECT "a"."k" AS "k", "a"."v" AS "v"
  FROM "x4" AS "a"
  WHERE NOT EXISTS (SELECT 1 FROM "R$3" AS "b" WHERE "b"."k" = "a"."k");
EXPORT "R" ORDER BY "k";
