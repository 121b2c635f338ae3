SET SCALE 2 ROUNDING HALF_UP;
INPUT "T" ("id" INTEGER, "k" INTEGER, "v" INTEGER) KEY ("id");
INPUT "S" ("id" INTEGER, "k" INTEGER, "w" TEXT) KEY ("id");
INPUT "R" ("id" INTEGER, "k" INTEGER) KEY ("id");
CREATE TABLE "U" AS
  SELECT "t"."id" AS "a", "s"."id" AS "b", "r"."id" AS "c"
  FROM "T" AS "t"
  LEFT JOIN "S" AS "s" ON "t"."k" = "s"."k"
  LEFT JOIN "R" AS "r" ON "s"."k" = "r"."k" AND "r"."id" = "t"."id";
EXPORT "U";
