SET SCALE 6 ROUNDING HALF_EVEN;
INPUT "T" ("id" INTEGER, "k" NUMBER) KEY ("id");
EXPORT "T";
CREATE TABLE "A" AS
  SELECT "t"."id" / "t"."k" AS "q"
  FROM "T" AS "t";
EXPORT "A";
INPUT "S" ("a" DATE) KEY ("a");
