// Who goes back to a page after signing out must not see it: the browser shows a page that it kept without asking anybody.
addEventListener("pageshow", event => {
  if (event.persisted) {
    location.reload();
  }
});
