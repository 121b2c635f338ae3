SET SCALE 2 ROUNDING HALF_UP;
INPUT "T" ("id" INTEGER, "k" INTEGER, "v" INTEGER) KEY ("id");
INPUT "S" ("id" INTEGER, "k" INTEGER, "w" TEXT) KEY ("id");
INPUT "R" ("id" INTEGER, "k" INTEGER) KEY ("id");
CREATE TABLE "U" AS
  SELECT "t"."id" AS "a", "s"."id" AS "b", "r"."id" AS "c"
  FROM "T" AS "t"
  CROSS JOIN "S" AS "s"
  CROSS JOIN "R" AS "r"
  WHERE "t"."k" = "s"."k" AND "r"."k" = "s"."k" AND "r"."id" = "s"."id";
EXPORT "U";
